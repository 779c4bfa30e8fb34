"""covcollect as Bazel's coverage merger: the script, with the program and gcov-json.awk beside it.

A sh_binary with data isn't enough. Bazel 4 gives a test the files of its merger, but not their runfiles. The job that makes the report
gets, in contrast, the runfiles and of the files only the executable. So program and gcov-json.awk are both.
"""

def _covcollect_merger_impl(ctx):
    merger = ctx.actions.declare_file(ctx.label.name)
    ctx.actions.symlink(output = merger, target_file = ctx.file.script, is_executable = True)
    program = ctx.actions.declare_file("covcollect", sibling = merger)
    ctx.actions.symlink(output = program, target_file = ctx.file.program, is_executable = True)
    json = ctx.actions.declare_file("gcov-json.awk", sibling = merger)
    ctx.actions.symlink(output = json, target_file = ctx.file.json)
    return [DefaultInfo(
        executable = merger,
        files = depset([merger, program, json]),
        runfiles = ctx.runfiles([program, json]),
    )]

covcollect_merger = rule(
    implementation = _covcollect_merger_impl,
    attrs = {
        "script": attr.label(allow_single_file = True, mandatory = True),
        "program": attr.label(allow_single_file = True, mandatory = True),
        "json": attr.label(allow_single_file = True, mandatory = True),
    },
    executable = True,
)
