dylib main
dylib lib_2
order main lib_2:exported main:all
tracker main t
tracker lib_2 u
object main t a.o
absolute main t zero=0 top=ffffffffffffffff
generator lib_2 u b.o
alias main t f=lib_2:g:x
client
define main t a.o
lookup resolved main:all,lib_2:exported f zero?
watch ready lib_2:all g:x
client
move t u
remove t
run f 1099511627776 0 18446744073709551615
watch ready main:all zero? f?
