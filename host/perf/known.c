/* Functions on which the measuring is tried, since what they take can be told by eye. */

/* Executes 47 instructions: its three, and those of two calls of ten_rounds, which has 22 each
 * (one, ten times two, one). */
__asm__(".text\n"
        ".globl ten_rounds, ten_rounds_twice\n"
        ".type ten_rounds, @function\n"
        "ten_rounds:\n"
        "    mov $10, %ecx\n"
        "1:  dec %ecx\n"
        "    jnz 1b\n"
        "    ret\n"
        ".size ten_rounds, . - ten_rounds\n"
        ".type ten_rounds_twice, @function\n"
        "ten_rounds_twice:\n"
        "    call ten_rounds\n"
        "    call ten_rounds\n"
        "    ret\n"
        ".size ten_rounds_twice, . - ten_rounds_twice\n");

/* Takes 80 bytes of stack: the return address, and 72 below it. */
__asm__(".text\n"
        ".globl eighty_bytes\n"
        ".type eighty_bytes, @function\n"
        "eighty_bytes:\n"
        "    movb $0, -72(%rsp)\n"
        "    ret\n"
        ".size eighty_bytes, . - eighty_bytes\n");
