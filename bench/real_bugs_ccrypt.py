"""ccrypt, whose null pointer the articles hunted (PLDI 2003, section 3.2). It is built with its own copy of crypt, which it has for where the system has none."""
import os

from real_bug import FILES, Bug, Program

CCRYPT = Program(
    name="ccrypt", package="ccrypt", version="1.11-2", driver="ccrypt_driver.c", folder="src", build=("./configure ac_cv_lib_crypt_crypt=no",), memory="bytes",
    files=("main.c", "traverse.c", "platform.c", "readkey.c", "rijndael.c", "unixcryptlib.c", "xalloc.c", "ccryptlib.c", "ccrypt.c", "unixcrypt3.c"),
    options=("-I..", "-I.", f"-I{FILES}", f"-I{os.path.join(FILES, 'system')}", "-DHAVE_CONFIG_H", '-DLOCALEDIR=""', "-Dmain=program_main"))

BUGS = [
    Bug(name="ccrypt-prompt", program=CCRYPT, kind="null pointer dereference", what="an answer is compared though the input has ended", mended="ccrypt 1.3, traverse.c",
        inputs=("prompts.py",), function="prompt", patch="ccrypt_prompt.patch", count=300),
]
