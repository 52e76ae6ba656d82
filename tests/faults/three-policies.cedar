permit (principal, action, resource) wen { true };
permit (principal, action, resource);
forbid (principal, action, resource) # all
;
permit (principal, action, resource) when { context.a = 1 };
permit (