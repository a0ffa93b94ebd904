/* A program without a C library. It imports from kernel32.dll, and from the DLL of zoo.c. */
#define IMPORTED __declspec(dllimport)

/* Declared as imported, a function is called by its entry in the address table; else by a stub. */
void *GetStdHandle(unsigned which);
IMPORTED int WriteFile(void *file, const void *bytes, unsigned count, unsigned *written, void *overlapped);
IMPORTED void ExitProcess(unsigned status);

int zoo_open(void);
IMPORTED int zoo_secret(void);
IMPORTED int zoo_animals;

void start(void) {
    static const char line[] = "The zoo is open.\n";
    unsigned written;
    WriteFile(GetStdHandle(-11), line, sizeof line - 1, &written, 0);
    ExitProcess(zoo_open() + zoo_secret() + zoo_animals);
}
