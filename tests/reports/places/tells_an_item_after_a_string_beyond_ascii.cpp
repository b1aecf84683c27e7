const char* a = "é€😀"; int b c;
