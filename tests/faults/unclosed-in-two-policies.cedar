permit (principal, action, resource) when { (context.a || context.b;
permit (principal, action, resource);
forbid (principal, action, resource) when { "é" == [1, 2 == context.a };
