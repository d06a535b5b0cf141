class 52 public+super NullArrays java/lang/Object
method static loads ()V
limits 3 0
aconst_null
iconst_0
aaload
iconst_0
laload
pop2
aconst_null
arraylength
pop
aconst_null
iconst_0
iconst_1
bastore
aconst_null
athrow
end
method public+static main ([Ljava/lang/String;)V
limits 0 1
return
end
