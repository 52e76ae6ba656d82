// Words that begin others, and words of the language as names of attributes.
@in("annotations may have any name")
@permit
forbid(principal, action, resource)
when {
  context.permit && context.when.unless > resource.action &&
  context has principal.resource && context.iffy.inner.isIt.hashed && {forbid: 1, "when": 2} != context.liked
};
