int g; /* no end
