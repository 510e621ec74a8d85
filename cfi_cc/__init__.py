"""C to raw modules: what the command `cfi-cc` is made of.

`command` leads a file through Clang, which `clang` calls. `intermediate` gives each call by a pointer a place of its
own, in Clang's intermediate code, of which `metadata` reads the nodes; `assembly` finds these places again at the
indirect jumps of the code; `objects` reads what the assembler made of it; `module` tells functions, branches and which
addresses are taken; `tables` writes that down. `plan` is the command `cfi-plan`.

Nothing here is trusted: whatever comes out, `cfi instrument` and `cfi verify` judge it.
"""
