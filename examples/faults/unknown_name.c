// unknown_name.c:3:12: unknown name
int main(void) {
    return count;
}
