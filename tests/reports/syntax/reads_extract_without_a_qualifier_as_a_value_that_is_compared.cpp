int extract;
int b = 1;
int a = extract < b;
int c = ::extract < b;
bool d = extract < (b) > (c);
