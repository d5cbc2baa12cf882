// outside_a_loop.c:3:5: outside a loop
int main(void) {
    break;
}
