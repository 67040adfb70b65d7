"""From a project's .c files to its points-to report.

The modules, in the order in which a program goes through them:

tokens        a text as lists of tokens, and edits that keep all lines
declarations  what a unit declares, and what of it nothing uses
units         a source file becomes a preprocessed text that remembers its places
records       structures: their first members, and how they become unions
conversions   what casts convert, asked of the compiler
facts         what a unit tells before any rewrite, and what the units of a program wish for together
catalogue     the names that the library's files define
syntax        rewrites that the tokens alone call for
converting    rewrites of conversions
wrappers      functions that become pointers to functions of another type
allocators    functions that the user says to allocate
agreeing      declarations of one name that don't agree
refusals      rewrites for what pta refuses still, one function for each kind
untold        pointers to functions whose parameters aren't told
fitting       a unit becomes one that passes
library       bodies for functions that no unit defines
running       pta
report        the places of the report become places of the source
asking        scripts of questions with names of the source
project       a program from its commands to its report
commands      compile_commands.json, and what `record` notes
cli           the command
graph         the other command: pictures of a report
"""
