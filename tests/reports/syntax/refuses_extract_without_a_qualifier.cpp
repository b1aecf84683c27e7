int a = 1;
int b = m::extract<int>(a); int c = extract<int>(a);
