client
lookup ready main:all main
