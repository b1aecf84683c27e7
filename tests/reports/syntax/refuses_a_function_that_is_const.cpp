int f(); int g() const;
