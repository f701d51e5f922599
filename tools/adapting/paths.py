"""Where the headers are, and what intermit predeclares."""
import os

TOP = os.path.dirname(os.path.dirname(os.path.dirname(os.path.realpath(__file__))))
INCLUDE = os.path.join(TOP, "include")
PREDECLARED = {
    "int8_t": "signed char", "uint8_t": "char", "int16_t": "short", "uint16_t": "unsigned short",
    "int32_t": "int", "uint32_t": "unsigned int", "size_t": "unsigned int",
}
PRELUDE = "\n".join([f'# 1 "{INCLUDE}/predeclared.h"']
                    + [f"typedef {words} {name};" for name, words in PREDECLARED.items()]
                    + ["int getchar(void);", "int putchar(int c);"]) + "\n"
