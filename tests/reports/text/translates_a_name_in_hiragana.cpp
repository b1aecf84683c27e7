constexpr int おおきさ = 1;
