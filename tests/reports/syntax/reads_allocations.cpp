struct s { int a; int b; };
int* c = new int;
int* d = new int(1);
int* e = new int{2};
int* f = new int[3];
int* g = new int[4]{5, 6};
s* h = new s{.a = 7, .b = 8};
const int** i = new const int*[9];
s* j = new ::s();
