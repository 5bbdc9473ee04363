.globl f
f: tail g
