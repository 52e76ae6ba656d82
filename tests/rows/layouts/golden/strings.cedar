// Strings: escapes, a line end, an empty one.
@text("first
second")
permit(principal, action == Action::"say \"hello\"", resource)
when { context.path like "C:\\*\*.txt" || context.path == "" || context["a key"]["// no comment"] };
