class 52 public+interface+abstract Upper java/lang/Object
method public own ()V
limits 0 1
return
end
