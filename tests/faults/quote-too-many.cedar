permit (principal ", action, resource);
permit (principal, action, resource) when { context.a == "x" };
permit (principal, action, resource);
