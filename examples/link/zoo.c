/* A DLL of two functions and a number. */
int zoo_animals = 32;

int zoo_open(void) {
    return 2;
}

int zoo_secret(void) {
    return 8;
}
