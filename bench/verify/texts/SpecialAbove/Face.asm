class 52 public+interface+abstract Face java/lang/Object
implements Upper
