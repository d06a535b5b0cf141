abstract class AcA implements AcI { abstract int g(); }
