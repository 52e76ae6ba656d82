permit (principal, action, resource) when { context.a or context.b };
