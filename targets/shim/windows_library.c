/* What Windows calls in a library when a process or a thread begins or ends. Nothing proves this file. */
int begin(void *module, unsigned why, void *none) {
    (void)module, (void)why, (void)none;
    return 1;
}
