typename [: ^^int :] a; [: ^^int :] b;
