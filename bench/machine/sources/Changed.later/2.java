interface ChK { default String f() { return "K.f"; } }
