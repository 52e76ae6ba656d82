permit (principal, action, resource) when { context.a == ‘x’ };
