int a = std::meta::extract<int>(b) + 1;
int c = m::extract<const s&>(d).e;
