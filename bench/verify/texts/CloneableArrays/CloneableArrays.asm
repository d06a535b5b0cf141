class 52 public+super CloneableArrays java/lang/Object
method static up ([[I)[Ljava/lang/Cloneable;
limits 1 1
aload_0
areturn
end
method static both ([[[J)[[Ljava/io/Serializable;
limits 1 1
aload_0
areturn
end
method static object ([[I)[Ljava/lang/Object;
limits 1 1
aload_0
areturn
end
method static nothing ([I)Ljava/io/Serializable;
limits 1 1
aload_0
areturn
end
method public+static main ([Ljava/lang/String;)V
limits 0 1
return
end
