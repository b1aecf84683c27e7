typename [: a :] b; typename c;
