package pa;
public class PkF extends pc.PkE { void f(int i) {} public void touch() { n += 4; } public int count() { return n; } }
