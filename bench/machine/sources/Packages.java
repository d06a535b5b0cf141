public class Packages {
    static void t(pa.PkA a) { a.g(); pa.PkA.call(a); if (a instanceof pb.PkB) ((pb.PkB) a).f(); if (a instanceof pa.PkC) ((pa.PkC) a).f(); System.out.println(a.getClass().getName()); }
    public static void main(String[] args) { t(new pa.PkA()); t(new pb.PkB()); t(new pa.PkC()); t(new pb.PkD()); t(new pc.PkE()); t(new pa.PkF()); pa.PkF f = new pa.PkF(); f.touch(); System.out.println(f.count()); }
}
