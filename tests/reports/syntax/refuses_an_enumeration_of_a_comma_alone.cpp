enum a { }; enum b { , };
