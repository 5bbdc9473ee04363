# Two objects whose functions call each other.
dylib main
tracker main t
object main t a.o
object main t b.o

client
lookup ready main:all main
run main 1000
