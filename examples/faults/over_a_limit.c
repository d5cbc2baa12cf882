// over_a_limit.c:2:1: over a limit
int many[65537];
int main(void) { return 0; }
