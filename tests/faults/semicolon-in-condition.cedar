permit (principal, action, resource) when { context.a; context.b };
permit (principal, action, resource);
