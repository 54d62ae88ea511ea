#!/bin/sh
# Changes a temporary copy of validation.rs in one place at a time and sees that the comparison notices each change.
#   oracle/mutations.sh [FIRST [LAST]]      changes FIRST to LAST, all of them by default
# The changed file is compared with the proved library where its archive is, else with the model. The recorded answers of
# crates/test_stages and crates/test_populate are held to it as well. Nothing is written inside the repository. The last line
# says how many changes were noticed, and how many of them by the recorded answers too.
set -u
here=$(cd "$(dirname "$0")" && pwd)
file=${BOKWINGI_VALIDATION_RS:-$here/../../shared/docs/src/src/validation.rs}
first=${1:-1}
last=${2:-1000}
archive=${BOKWINGI_ARCHIVE:-$here/../target/staticlib/libbokwingi.a}
against=
[ -f "$archive" ] && against=--library
tmp=$(mktemp -d)
trap 'rm -rf "$tmp"' EXIT
export CARGO_TARGET_DIR="$tmp/target"
export BOKWINGI_VALIDATION_RS="$tmp/validation.rs"

run() {
    (cd "$here" && nice cargo build -q -j1 --release --offline -p compare 2>"$tmp/build.log") || return 2
    nice "$tmp/target/release/compare" $against --count 60000 --quiet >"$tmp/run.log" 2>&1
}

recorded() {
    nice "$tmp/target/release/record" check "$here/../crates/test_stages" >"$tmp/record.log" 2>&1 &&
        nice "$tmp/target/release/record" populate-check "$here/../crates/test_populate" >"$tmp/record.log" 2>&1
}

cp "$file" "$tmp/validation.rs"
if ! run || ! recorded; then
    echo "the unchanged file does not compare equal:"
    cat "$tmp/build.log" "$tmp/run.log" "$tmp/record.log"
    exit 1
fi

cat >"$tmp/changes" <<'CHANGES'
s/non_zero < size/non_zero <= size/
s/STORE, !read_only/STORE, read_only/
s/(ty == wgt::SamplerBindingType::Comparison) != comparison/(ty == wgt::SamplerBindingType::Comparison) == comparison/
s/|| shader_access == naga::StorageAccess::STORE/|| shader_access == naga::StorageAccess::LOAD/
s/(naga::ImageDimension::Cube, wgt::TextureViewDimension::CubeArray)/(naga::ImageDimension::Cube, wgt::TextureViewDimension::Cube)/
s/BindingType::ExternalTexture => wgt::TextureViewDimension::D2,/BindingType::ExternalTexture => wgt::TextureViewDimension::D3,/
s/naga::StorageAccess::ATOMIC | LOAD_STORE/naga::StorageAccess::ATOMIC/
s/if vertex_return == entry_vertex_return/if vertex_return <= entry_vertex_return/
s/read_only: access == naga::StorageAccess::LOAD/read_only: access != naga::StorageAccess::LOAD | naga::StorageAccess::STORE/
s/filterable: is_reffed_by_sampler_in_entrypoint/filterable: !is_reffed_by_sampler_in_entrypoint/
s/has_dynamic_offset: false,/has_dynamic_offset: true,/
s/min_binding_size: Some(size),/min_binding_size: None,/
s/s0 <= s1/s0 < s1/
s/self.scalar.width > other.scalar.width/self.scalar.width < other.scalar.width/
s/c0 == c1 && r0 == r1/c0 == c1/
s/Vf::Float64x2 => (NumericDimension::Vector(Vs::Bi), Scalar::F64)/Vf::Float64x2 => (NumericDimension::Vector(Vs::Bi), Scalar::F32)/
s/Tf::R64Uint => (NumericDimension::Scalar, Scalar::U64)/Tf::R64Uint => (NumericDimension::Scalar, Scalar::U32)/
s/if entry_points.next().is_some()/if entry_points.next().is_none()/
s/size.max(\*e.get())/size.min(*e.get())/
s/!entry.visibility.contains(stage_bit)/false/
s/e.get().ty != ty/e.get().ty == ty/
s/visibility |= stage_bit/visibility = stage_bit/
s/|&(im, _samp)| im == handle/|\&(_im, samp)| samp == handle/
s/(true, wgt::TextureSampleType::Sint) => Some(FilteringError::Integer)/(true, wgt::TextureSampleType::Sint) => Some(FilteringError::Float)/
s/BindingType::Sampler(wgt::SamplerBindingType::Filtering)$/BindingType::Sampler(_)/
s/total > total_limit/total >= total_limit/
s/|(dim, limit)| dim > limit/|(dim, limit)| dim >= limit/
s/if total == 0 {/if total == u32::MAX {/
s/self.limits.max_compute_workgroup_size_y,/self.limits.max_compute_workgroup_size_x,/
s/iv.ty.scalar.kind == provided.ty.scalar.kind/iv.ty.is_subtype_of(\&provided.ty)/
s/iv.ty.is_subtype_of(&provided.ty),/provided.ty.is_subtype_of(\&iv.ty),/
s/iv.sampling != provided.sampling/iv.sampling.is_some() != provided.sampling.is_some()/
s/iv.per_primitive == provided.per_primitive/true/
s/(is_compatible, !iv.per_primitive)/(is_compatible, !provided.per_primitive)/
s/topology == wgt::PrimitiveTopology::PointList {/topology == wgt::PrimitiveTopology::LineList {/
s/location > max_vertex_shader_output_location/location >= max_vertex_shader_output_location/
s/num_user_defined_outputs > max_vertex_shader_output_variables/num_user_defined_outputs >= max_vertex_shader_output_variables/
s/location >= self.limits.max_inter_stage_shader_variables/location > self.limits.max_inter_stage_shader_variables/
s/num_user_defined_inputs > max_fragment_shader_input_variables/num_user_defined_inputs > self.limits.max_inter_stage_shader_variables/
s/location >= self.limits.max_color_attachments/location > self.limits.max_color_attachments/
s/dual_source_blending && !entry_point.dual_source_blending/dual_source_blending != entry_point.dual_source_blending/
s/&& !has_depth_attachment/\&\& has_depth_attachment/
s/mesh_info.max_vertices > self.limits/mesh_info.max_vertices >= self.limits/
s/mesh_info.max_primitives > self.limits.max_mesh_output_primitives/mesh_info.max_primitives > self.limits.max_mesh_output_vertices/
s/if primitive_topology != Some(mesh_info.primitive_topology)/if primitive_topology.is_some_and(|t| t != mesh_info.primitive_topology)/
s/task_payload_size > self.limits.max_task_payload_size/task_payload_size >= self.limits.max_task_payload_size/
s/&& entry_point.task_payload_size != inputs.task_payload_size/\&\& entry_point.task_payload_size.is_some() != inputs.task_payload_size.is_some()/
s/&& inputs.primitive_index == Some(false)/\&\& inputs.primitive_index.is_some()/
s/&& inputs.primitive_index == Some(true)/\&\& inputs.primitive_index.is_some()/
s/has_draw_id = true/has_draw_id = false/
s/primitive_topology.is_none_or/primitive_topology.is_some_and/
s/Some(this_stage_primitive_index)/None/
s/for member in members {/for member in members.iter().rev() {/
s/for member in members {/for member in members.iter().skip(1) {/
s/member.binding.as_ref(), member.ty/binding, member.ty/
s/Some(naga::Binding::BuiltIn(naga::BuiltIn::ClipDistances)),/Some(_),/
s/Some(naga::Binding::BuiltIn(naga::BuiltIn::ClipDistances)),/None,/
s/let array_size = array_size.get();/let array_size = array_size.get() - 1;/
/Missing binding for a varying/{n;s/return;/Varying::BuiltIn(BuiltIn::ViewIndex)/;}
/}) => Varying::Local {/{n;s/location,/location: location + 1,/;}
/ty: numeric_ty,/,/}/s/interpolation,/interpolation: None,/
/ty: numeric_ty,/,/}/s/sampling,/sampling: None,/
/ty: numeric_ty,/,/}/s/per_primitive,/per_primitive: !per_primitive,/
/ty: numeric_ty,/,/}/s/per_primitive,/per_primitive: sampling.is_some(),/
s/NumericDimension::Matrix(columns, rows)/NumericDimension::Matrix(rows, columns)/
s/NumericDimension::Vector(size)/NumericDimension::Scalar/
s/naga::BuiltIn::DrawIndex => BuiltIn::DrawIndex,/naga::BuiltIn::DrawIndex => BuiltIn::PrimitiveIndex,/;s/naga::BuiltIn::PrimitiveIndex => BuiltIn::PrimitiveIndex,/naga::BuiltIn::PrimitiveIndex => BuiltIn::DrawIndex,/
s/naga::BuiltIn::FragDepth => BuiltIn::FragDepth,/naga::BuiltIn::FragDepth => BuiltIn::PointCoord,/
s/naga::BuiltIn::HitKind => BuiltIn::HitKind,/naga::BuiltIn::HitKind => BuiltIn::FragDepth,/
s/list.push(varying);/list.insert(0, varying);/
CHANGES

at=0
tried=0
noticed=0
by_recorded=0
while IFS= read -r change; do
    at=$((at + 1))
    [ "$at" -ge "$first" ] && [ "$at" -le "$last" ] || continue
    tried=$((tried + 1))
    sed "$change" "$file" >"$tmp/validation.rs"
    if cmp -s "$file" "$tmp/validation.rs"; then
        echo "$at NO CHANGE   $change"
        continue
    fi
    run
    case $? in
    1)
        noticed=$((noticed + 1))
        recorded || by_recorded=$((by_recorded + 1))
        echo "$at noticed ($(tail -n 1 "$tmp/run.log"); $(tail -n 1 "$tmp/record.log"))   $change"
        ;;
    0) echo "$at NOT NOTICED   $change" ;;
    *) echo "$at DOES NOT BUILD   $change" && head -n 5 "$tmp/build.log" ;;
    esac
done <"$tmp/changes"
echo "$noticed of $tried changes noticed, $by_recorded by the recorded answers too"
[ "$noticed" -eq "$tried" ]
