// Teachers grade their own courses until the term ends.
@id("grades")
permit(principal is School::Teacher, action in School::Action::"grading", resource is School::Course)
when { principal in resource.teachers } unless { resource.term.closed };

// A pupil sees grades, parents those of their children.
@id("see-grades")
permit(principal, action == School::Action::"seeGrade", resource is School::Grade)
when { resource.pupil == principal || principal is School::Parent && resource.pupil in principal.children };
