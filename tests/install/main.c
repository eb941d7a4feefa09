/* A program as a caller has it: compiled through pkg-config by tests/install/run, which holds what it prints. */
#include <g719.h>

#include <stdio.h>

#if G719_VERSION_MAJOR > 0 || G719_VERSION_MINOR < 2
#error "this program is for 0.2"
#endif

int main(void)
{
    /* an empty frame, and a prefix byte without its body */
    static const uint8_t file[2] = { 0x00, 0x20 };
    g719_check check = g719_check_file(file, sizeof file, 2);
    printf("g719 %s\n", G719_VERSION);
    printf("a frame of mode 3 has %zu bytes\n", 1 + G719_BODY_BYTES(3));
    printf("not complete: %s; %u sound frames, %zu\n", g719_reply_text(check.reply), (unsigned)check.count, check.place);
    return check.reply == G719_CUT ? 0 : 1;
}
