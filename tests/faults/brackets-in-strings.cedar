permit (principal, action, resource) // (
when { "("