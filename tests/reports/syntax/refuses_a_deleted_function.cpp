int f(); int g() = delete;
