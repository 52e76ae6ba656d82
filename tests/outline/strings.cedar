@id("")
@id("b")
permit(principal, action, resource) when { "x
y" == "z" };
