class 52 public+interface+abstract Face java/lang/Object
method public own ()V
limits 0 1
return
end
