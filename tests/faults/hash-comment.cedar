permit (principal, action, resource) # comment
when { true };