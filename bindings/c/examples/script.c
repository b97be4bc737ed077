#include "example.h"

int main(void) {
    const char *text = "region r container 0x1000\nspace s r\nshow s\n";
    uint8_t out[4096];
    vb_answer a = done(vb_run((const uint8_t *)text, strlen(text), out, sizeof out));
    check(a.value == 10 && memcmp(out, "view s g1\n", 10) == 0, "what it writes, and how many bytes that is");
    return 0;
}
