// Ours: the doc examples of arrow-schema 60.1.0 (Apache-2.0; see LICENSE.txt and
// NOTICE.txt) for the operations that we compare against, run as plain tests.
// The comment above each test names the file and the item whose doc comment it copies.

use arrow_schema::*;
use std::sync::Arc;

// src/schema.rs, `Schema::try_merge`.
#[test]
fn merging_schemas_folds_columns_by_name_and_widens_nullability() {
    let merged = Schema::try_merge(vec![
        Schema::new(vec![
            Field::new("c1", DataType::Int64, false),
            Field::new("c2", DataType::Utf8, false),
        ]),
        Schema::new(vec![
            Field::new("c1", DataType::Int64, true),
            Field::new("c2", DataType::Utf8, false),
            Field::new("c3", DataType::Utf8, false),
        ]),
    ])
    .unwrap();

    assert_eq!(
        merged,
        Schema::new(vec![
            Field::new("c1", DataType::Int64, true),
            Field::new("c2", DataType::Utf8, false),
            Field::new("c3", DataType::Utf8, false),
        ]),
    );
}

// src/field.rs, `Field::try_merge`.
#[test]
fn merging_a_nullable_field_makes_the_field_nullable() {
    let mut field = Field::new("c1", DataType::Int64, false);
    assert!(
        field
            .try_merge(&Field::new("c1", DataType::Int64, true))
            .is_ok()
    );
    assert!(field.is_nullable());
}

// src/schema.rs, `SchemaBuilder::project`, "Example: reorder fields".
#[test]
fn strict_projection_reorders_fields() {
    let schema = Schema::new(vec![
        Field::new("id", DataType::Int64, false),
        Field::new("name", DataType::Utf8, true),
        Field::new("score", DataType::Float64, true),
    ]);

    let reordered = SchemaBuilder::from(&schema).project(&[2, 0, 1]).unwrap();
    assert_eq!(reordered.field(0).name(), "score");
    assert_eq!(reordered.field(1).name(), "id");
    assert_eq!(reordered.field(2).name(), "name");
}

// src/schema.rs, `SchemaBuilder::project`, "Example: select a subset of fields".
#[test]
fn strict_projection_selects_a_subset_of_fields() {
    let schema = Schema::new(vec![
        Field::new("id", DataType::Int64, false),
        Field::new("name", DataType::Utf8, true),
        Field::new("score", DataType::Float64, true),
    ]);

    let subset = SchemaBuilder::from(&schema).project(&[0, 2]).unwrap();
    assert_eq!(subset.fields().len(), 2);
    assert_eq!(subset.field(0).name(), "id");
    assert_eq!(subset.field(1).name(), "score");
}

// src/fields.rs, `Fields::filter_leaves`.
#[test]
fn filtering_keeps_the_chosen_leaves_and_what_holds_them() {
    let fields = Fields::from(vec![
        Field::new("a", DataType::Int32, true), // Leaf 0
        Field::new(
            "b",
            DataType::Struct(Fields::from(vec![
                Field::new("c", DataType::Float32, false), // Leaf 1
                Field::new("d", DataType::Float64, false), // Leaf 2
                Field::new(
                    "e",
                    DataType::Struct(Fields::from(vec![
                        Field::new("f", DataType::Int32, false),   // Leaf 3
                        Field::new("g", DataType::Float16, false), // Leaf 4
                    ])),
                    true,
                ),
            ])),
            false,
        ),
    ]);
    let filtered = fields.filter_leaves(|idx, _| [0, 2, 3, 4].contains(&idx));
    let expected = Fields::from(vec![
        Field::new("a", DataType::Int32, true),
        Field::new(
            "b",
            DataType::Struct(Fields::from(vec![
                Field::new("d", DataType::Float64, false),
                Field::new(
                    "e",
                    DataType::Struct(Fields::from(vec![
                        Field::new("f", DataType::Int32, false),
                        Field::new("g", DataType::Float16, false),
                    ])),
                    true,
                ),
            ])),
            false,
        ),
    ]);
    assert_eq!(filtered, expected);
}

// src/schema.rs, `Schema::normalize`.
#[test]
fn normalising_expands_a_struct_under_joined_names() {
    let schema = Schema::new(vec![Field::new(
        "a",
        DataType::Struct(Fields::from(vec![
            Arc::new(Field::new("animals", DataType::Utf8, true)),
            Arc::new(Field::new("n_legs", DataType::Int64, true)),
        ])),
        false,
    )])
    .normalize(".", None)
    .expect("valid normalization");
    let expected = Schema::new(vec![
        Field::new("a.animals", DataType::Utf8, true),
        Field::new("a.n_legs", DataType::Int64, true),
    ]);
    assert_eq!(schema, expected);
}

// src/schema.rs, `Schema::flattened_fields` (without the `mut` that it does not need).
#[test]
fn flattening_lists_each_parent_before_its_children() {
    let f1 = Arc::new(Field::new("a", DataType::Boolean, false));

    let f2_inner = Arc::new(Field::new("b_inner", DataType::Int8, false));
    let f2 = Arc::new(Field::new("b", DataType::List(f2_inner.clone()), false));

    let f3_inner1 = Arc::new(Field::new("c_inner1", DataType::Int8, false));
    let f3_inner2 = Arc::new(Field::new("c_inner2", DataType::Int8, false));
    let f3 = Arc::new(Field::new(
        "c",
        DataType::Struct(vec![f3_inner1.clone(), f3_inner2.clone()].into()),
        false,
    ));

    let schema = Schema::new(vec![f1.clone(), f2.clone(), f3.clone()]);
    assert_eq!(
        schema.flattened_fields(),
        vec![
            f1.as_ref(),
            f2.as_ref(),
            f2_inner.as_ref(),
            f3.as_ref(),
            f3_inner1.as_ref(),
            f3_inner2.as_ref()
        ]
    );
}

// src/fields.rs, `UnionFields::try_new`, first half.
#[test]
fn a_union_takes_the_type_ids_given() {
    // Create a new UnionFields with type id mapping
    // 1 -> DataType::UInt8
    // 3 -> DataType::Utf8
    let result = UnionFields::try_new(
        vec![1, 3],
        vec![
            Field::new("field1", DataType::UInt8, false),
            Field::new("field3", DataType::Utf8, false),
        ],
    );
    assert!(result.is_ok());
}

// src/fields.rs, `UnionFields::try_new`, second half.
#[test]
fn a_union_refuses_one_type_id_twice() {
    // This will fail due to duplicate type ids
    let result = UnionFields::try_new(
        vec![1, 1],
        vec![
            Field::new("field1", DataType::UInt8, false),
            Field::new("field2", DataType::Utf8, false),
        ],
    );
    assert!(result.is_err());
}

// src/fields.rs, `UnionFields::try_from_fields`, first half.
#[test]
fn numbering_union_fields_takes_them_all() {
    // Create a new UnionFields with automatic type id assignment
    // 0 -> DataType::UInt8
    // 1 -> DataType::Utf8
    let result = UnionFields::try_from_fields(vec![
        Field::new("field1", DataType::UInt8, false),
        Field::new("field2", DataType::Utf8, false),
    ]);
    assert!(result.is_ok());
    assert_eq!(result.unwrap().len(), 2);
}

// src/fields.rs, `UnionFields::try_from_fields`, second half.
#[test]
fn numbering_too_many_union_fields_is_refused() {
    // This will fail with too many fields
    let many_fields: Vec<_> = (0..200)
        .map(|i| Field::new(format!("field{}", i), DataType::Int32, false))
        .collect();
    let result = UnionFields::try_from_fields(many_fields);
    assert!(result.is_err());
}

// src/fields.rs, `UnionFields::from_fields`.
#[test]
fn numbering_without_a_result_takes_them_all() {
    // Create a new UnionFields with automatic type id assignment
    // 0 -> DataType::UInt8
    // 1 -> DataType::Utf8
    let union_fields = UnionFields::from_fields(vec![
        Field::new("field1", DataType::UInt8, false),
        Field::new("field2", DataType::Utf8, false),
    ]);
    assert_eq!(union_fields.len(), 2);
}
