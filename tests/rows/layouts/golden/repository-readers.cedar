// What a reader may do is what a repository shows to the public.
@id("public") permit(principal,action in[Action::"pull",Action::"fork"],resource is Repository)when{!resource.isPrivate};
@id("readers") permit(principal,action in[Action::"pull",Action::"fork"],resource)when{principal in resource.readers};
@id("writers") permit(principal,action==Action::"push",resource)when{principal in resource.writers}unless{resource.archived};
