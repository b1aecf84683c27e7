void f(int a) { (std::vector<s>{}); }
void g(int a) { std::vector<s>{}; }
