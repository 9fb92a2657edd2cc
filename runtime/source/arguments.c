/* The words by which main is called, where the program has none of its own. */
char *program_arguments[] = {"program", 0};
