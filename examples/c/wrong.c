// A plug-in of another type than its host calls: it takes a pointer, and would read where a byte points to.
int wrong(const char *text) { return text[0]; }
