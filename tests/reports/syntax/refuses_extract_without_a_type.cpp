int a = 1;
int b = m::extract<int>(a); int c = m::extract<1>(a);
