// bad_byte.c:3:14: bad byte
int main(void) {
    return 1 $ 2;
}
